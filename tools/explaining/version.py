"""The version of the product and the revision of the rules, as the header of the library names them."""
import os
import re

HEADER = os.path.join(os.path.dirname(os.path.abspath(__file__)), "..", "..", "include", "hutchdecade.h")


def version():
    try:
        with open(HEADER, encoding="utf-8") as file:
            named = dict(re.findall(r'(?m)^#define HUTCH_(VERSION|RULES) +"?([\w.]+)"?', file.read()))
    except OSError:
        named = {}
    return f"explain {named.get('VERSION', '(no version: include/hutchdecade.h is not there)')}, rules {named.get('RULES', '1')}"
