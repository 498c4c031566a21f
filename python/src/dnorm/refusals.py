"""The number, name and sentence of each refusal in dnorm help, of the table refusals.json."""

import json
import os

with open(os.path.join(os.path.dirname(__file__), "refusals.json"), encoding="utf-8") as _table:
    _rows = json.load(_table)["refusals"]
REFUSALS: "dict[int, tuple[str, str]]" = {it["number"]: (it["name"], it["sentence"]) for it in _rows}
