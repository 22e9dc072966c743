# Reads rows into pandas, by way of JSON lines. Whole numbers stay exact where one is NULL, and decimals are no doubles.
# Needs: python3 with pandas
import json
import subprocess
from decimal import Decimal

import pandas

subprocess.run(["bash", "json_lines.sh"], check=True, stdout=subprocess.DEVNULL)
with open("rows.jsonl", encoding="utf-8") as lines:
    objects = [json.loads(line, parse_float=Decimal) for line in lines]
orders = pandas.DataFrame(objects, dtype=object).astype({"id": "Int64", "name": "string", "note": "string"})
orders["price"] = orders["price"].map(Decimal, na_action="ignore")

for order in orders.itertuples(index=False):
    print(order.id, order.name, "NULL" if order.note is pandas.NA else repr(order.note), order.price)
