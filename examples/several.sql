SELECT JSON_EXISTS(doc, 'lax $.customer');
select json_exists(doc, 'lax $.customer.email');

Select
  Json_Exists(
    doc, 'lax $.order.lines.sku'
  );
