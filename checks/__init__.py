"""The repository's own checks, run behind `rt ci` by the test command."""
