"""The boards of a class, as the hub and the students' servers tell of them.

A student's server is the student's own, who can read what comes to it, and have it answer anything. So none is sent the token of
the class page, which opens all servers: each gets one that opens it alone. And answers are taken for what a stranger says."""
import asyncio
import collections
import json
import os
import time
import urllib.parse

from tornado.httpclient import AsyncHTTPClient, HTTPError

API, PROXY = os.environ["JUPYTERHUB_API_URL"], os.environ["LAB80_PROXY"]
OWN = os.environ["JUPYTERHUB_API_TOKEN"]

# The most seconds for an answer, and its most bytes; the most users whom the hub names at once.
PATIENCE, LONGEST, MOST_USERS = 10, 1 << 20, 200

# The seconds for which a token of a student's server is good. Some time before that another one is asked for.
GOOD, SPARE = 24 * 3600, 3600

# The most boards that are shown of a student, and the most letters of a notebook's path.
MOST_BOARDS, MOST_LETTERS = 16, 120

STATES = ("busy", "idle", "starting", "restarting", "autorestarting", "dead")

# Why a server doesn't answer as it should.
FAULTS = (HTTPError, OSError, ValueError, LookupError, TypeError, AttributeError)

# A board on a server: its identifier, its notebook's path, the state that the server tells, how many pages are open on it, and the
# addresses of its panel and of its channels.
Board = collections.namedtuple("Board", "id path state pages panel channels")

# What the page shows of a student: what its server does, and the boards there.
Student = collections.namedtuple("Student", "server boards")

AsyncHTTPClient.configure(None, max_clients=20, max_body_size=LONGEST)


def let_in(token):
    return {"Authorization": f"token {token}", "Accept": "application/json"}


async def ask(address, token, content=None):
    """What an address answers. It isn't followed elsewhere."""
    how = {} if content is None else {"method": "POST", "body": json.dumps(content)}
    reply = await AsyncHTTPClient().fetch(address, headers=let_in(token), follow_redirects=False, connect_timeout=PATIENCE,
                                          request_timeout=PATIENCE, **how)
    return json.loads(reply.body)


async def servers():
    """The hub's users with what it tells of their servers, by name."""
    found, more = {}, True
    while more:
        users = await ask(f"{API}/users?limit={MOST_USERS}&offset={len(found)}", OWN)
        more = len(users) == MOST_USERS
        found |= {user["name"]: user.get("servers", {}).get("") for user in users}
    return found


class Tokens:
    """The tokens of the students' servers. A student sees them on the hub's page of tokens, as the class page's."""

    def __init__(self):
        self.kept = {}

    async def of(self, name):
        token, until = self.kept.get(name, ("", 0))
        if time.monotonic() > until:
            wanted = {"note": "The class page looks at your boards", "expires_in": GOOD, "scopes": [f"access:servers!user={name}"]}
            token = (await ask(f"{API}/users/{urllib.parse.quote(name)}/tokens", OWN, wanted))["token"]
            self.kept[name] = token, time.monotonic() + GOOD - SPARE
        return token

    def drop(self, name):
        """Forgets a token that was refused, as that of an account that was made anew."""
        self.kept.pop(name, None)


tokens = Tokens()


async def student(name, server):
    if not server or not server["ready"]:
        return Student("starts or stops" if server and server["pending"] else "doesn't run", [])
    found = await boards(name, server["url"])
    return Student("doesn't answer" if found is None else "runs", found or [])


async def boards(name, path):
    """The boards on a server that runs; None if it doesn't answer as it should."""
    try:
        token = await tokens.of(name)
        kernels, sessions = await asyncio.gather(ask(f"{PROXY}{path}api/kernels?no_track_activity=1", token),
                                                 ask(f"{PROXY}{path}api/sessions?no_track_activity=1", token))
        paths = {each["kernel"]["id"]: each["path"] for each in sessions if each.get("kernel")}
        found = [each for each in kernels if each["name"] == "lab80"]
        return [board(path, kernel, paths.get(kernel["id"], "without a notebook")) for kernel in found[:MOST_BOARDS]]
    except FAULTS as fault:
        if isinstance(fault, HTTPError) and fault.code in (401, 403):
            tokens.drop(name)
        return None


def board(path, kernel, notebook):
    given, sockets = urllib.parse.quote(kernel["id"], safe=""), PROXY.replace("http", "ws", 1)
    state = kernel["execution_state"] if kernel["execution_state"] in STATES else ""
    return Board(kernel["id"], str(notebook)[:MOST_LETTERS], state, int(kernel["connections"]),
                 f"{path}kernelspecs/lab80/panel.html?kernel={given}", f"{sockets}{path}api/kernels/{given}/channels")
