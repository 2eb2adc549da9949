"""Sends a form as browsers do, and prints what is answered and the status.

usage: ask.py ADDRESS [-d|--data-urlencode NAME=VALUE]..
"""

import sys
import urllib.error
import urllib.parse
import urllib.request

address, *words = sys.argv[1:]
fields = [word.split("=", 1) for word in words[1::2]]
form = urllib.parse.urlencode([(urllib.parse.unquote(name), value) for name, value in fields]).encode()
opener = urllib.request.build_opener(urllib.request.ProxyHandler({}))
try:
    response = opener.open(address, form, timeout=10)
except urllib.error.HTTPError as error:
    response = error
print(f"{response.read().decode()}{response.status}")
