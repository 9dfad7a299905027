#!/usr/bin/env python3
"""Draws the run of a script as SVG: draw_drill.py SCRIPT STEPS > PICTURE.

SCRIPT is the script, STEPS what `drill_steps steps` (a program of figures/) prints of it. The client, each connection, the server and its journal
are lifelines. A message is an arrow into its connection where it is sent and out of it where it is heard; one that never
arrives ends in a cross. A restart is a bar, an event that acted an arrow into the journal, and the outcomes stand at the end."""
import sys
from html import escape

ROW, TOP, WIDTH = 17, 62, 980
CLIENT, SERVER, JOURNAL = 150, 760, 900
NAMES = {"create": "CREATE", "write": "WRITE", "fill": "WRITE", "read": "READ", "end": "SET_INFO", "time": "SET_INFO",
         "rename": "SET_INFO", "remove": "SET_INFO", "lock": "LOCK", "unlock": "LOCK", "flush": "FLUSH",
         "stat": "QUERY_INFO", "list": "QUERY_DIRECTORY", "close": "CLOSE"}
STYLE = """text{font:11px sans-serif;fill:#222;paint-order:stroke;stroke:#fff;stroke-width:3px}
.head{font-weight:bold;font-size:13px}.op{font-style:italic}.outcome{font:12px monospace}
.life{stroke:#bbb;stroke-dasharray:3 3}.message{stroke:#27548a;fill:#27548a}.acted{stroke:#3a7d44;fill:#3a7d44}
.lost{stroke:#b3261e;fill:#b3261e}text.lost,text.event{stroke:#fff}.restart,.cut{fill:#b3261e}"""
DIALOG = ["NEGOTIATE", "SESSION_SETUP", "SESSION_SETUP", "TREE_CONNECT"]


def operations(script):
    """The names of a script's operations, from 1 on."""
    words = [line.split(" ") for line in script.splitlines() if line.startswith("op ")]
    return [""] + ["%s %d" % (NAMES[w[1]], n) for n, w in enumerate(words, 1)]


def steps(text):
    """The steps, and the lines of the outcomes behind them."""
    lines = text.splitlines()
    told = [line.split(" ")[1:] for line in lines if line.startswith("# ")]
    return told, [line for line in lines if not line.startswith("# ")]


class Picture:
    def __init__(self, names, connections):
        gap = (SERVER - CLIENT) / (len(connections) + 1)
        self.at = {k: CLIENT + gap * (n + 1) for n, k in enumerate(connections)}
        self.names, self.parts, self.y = names, [], TOP
        self.up, self.down = {k: [] for k in connections}, {k: [] for k in connections}
        self.hop = {k: 0 for k in connections}

    def text(self, x, y, words, anchor="middle", kind=""):
        shape = '<text x="%g" y="%g" text-anchor="%s" class="%s">%s</text>'
        self.parts.append(shape % (x, y, anchor, kind, escape(words)))

    def line(self, x, y, x2, y2, kind):
        self.parts.append('<line x1="%g" y1="%g" x2="%g" y2="%g" class="%s"/>' % (x, y, x2, y2, kind))

    def bar(self, x, width, height, kind):
        """A bar over lifelines."""
        shape = '<rect x="%g" y="%g" width="%g" height="%g" class="%s"/>'
        self.parts.append(shape % (x, self.y - height / 2, width, height, kind))

    def arrow(self, x, x2, label, kind="message"):
        """An arrow in this row, its label at its tail."""
        self.line(x, self.y, x2, self.y, kind)
        tip = -5 if x2 > x else 5
        self.parts.append('<path d="M%g %g l%g -3 v6 z" class="%s"/>' % (x2, self.y, tip, kind))
        if label:
            self.text((x + x2) / 2, self.y - 3, label)

    def cross(self, k, label):
        """A message that never arrives."""
        x = self.at[k]
        self.line(x - 4, self.y - 4, x + 4, self.y + 4, "lost")
        self.line(x - 4, self.y + 4, x + 4, self.y - 4, "lost")
        self.text(x + 8, self.y + 4, "%s lost" % label, "start", "lost")
        self.y += ROW + 4

    def lose(self, way, k):
        for label in way[k]:
            self.cross(k, label)
        way[k] = []

    def dialog(self, k):
        return DIALOG[min(self.hop[k], 3)]

    def step(self, word, k, op, status, acted, ups, downs, client, server):
        label = self.names[op]
        if word == "op":
            self.text(CLIENT - 8, self.y + 4, label, "end", "op")
        elif word == "open":
            self.hop[k] = 0
            self.arrow(CLIENT, self.at[k], self.dialog(k))
            self.up[k], self.down[k] = ([self.dialog(k)] if ups else []), []
        elif word == "push" and op:
            self.arrow(CLIENT, self.at[k], label)
            self.up[k].append(label)
        elif word == "serve":
            self.serve(k, status, acted, downs, server)
        elif word == "take":
            self.take(k, ups, client)
        elif word == "cut":
            self.bar(CLIENT - 7, 14, 5, "cut")
            self.text(CLIENT - 12, self.y + 4, "cut %d" % k, "end", "event")
            self.y += ROW
            self.lose(self.down, k)
            return
        elif word == "drop":
            self.bar(SERVER - 7, 14, 5, "cut")
            self.text(SERVER + 12, self.y + 4, "drop %d" % k, "start", "event")
            self.y += ROW
            self.lose(self.up, k)
            return
        elif word in ("restart", "crash"):
            self.restart(word)
            return
        else:
            return
        self.y += ROW

    def serve(self, k, status, acted, downs, server):
        label = self.up[k].pop(0) if self.up[k] else ""
        self.arrow(self.at[k], SERVER, label)
        if acted:
            self.arrow(SERVER, JOURNAL, "acted", "acted")
        self.y += ROW
        if server == "closed":
            self.text(SERVER + 12, self.y + 4, "ends %d" % k, "start", "event")
        for n in range(max(0, downs - len(self.down[k]))):
            self.arrow(SERVER, self.at[k], status if status != "00000000" else "success")
            self.down[k].append(label + " reply")

    def take(self, k, ups, client):
        label = self.down[k].pop(0) if self.down[k] else ""
        self.arrow(self.at[k], CLIENT, label)
        if client == "ready" and label.split(" ")[0] in DIALOG:
            self.text(CLIENT - 8, self.y + 4, "channel %d ready" % k, "end", "event")
        if client == "closed":
            self.lose(self.down, k)
        if ups > len(self.up[k]):
            self.y += ROW
            self.hop[k] += 1
            self.arrow(CLIENT, self.at[k], self.dialog(k))
            self.up[k].append(self.dialog(k))

    def restart(self, word):
        self.y += 4
        self.bar(SERVER - 14, JOURNAL - SERVER + 28, 9, "restart")
        self.text(SERVER - 20, self.y + 3, word, "end", "event")
        self.y += ROW
        for k in self.up:
            self.lose(self.up, k)

    def svg(self, outcomes):
        end = self.y
        for n, line in enumerate(outcomes):
            self.text(CLIENT - 60, end + 26 + n * 15, line, "start", "outcome")
        height = end + 40 + 15 * len(outcomes)
        heads = [(CLIENT, "client")] + [(x, "connection %d" % k) for k, x in self.at.items()]
        heads += [(SERVER, "server"), (JOURNAL, "journal")]
        body = []
        for x, name in heads:
            body.append('<text x="%g" y="30" text-anchor="middle" class="head">%s</text>' % (x, name))
            body.append('<line x1="%g" y1="38" x2="%g" y2="%g" class="life"/>' % (x, x, end))
        return ('<svg xmlns="http://www.w3.org/2000/svg" width="%d" height="%d" viewBox="0 0 %d %d"><style>%s</style>\n'
                '<rect width="100%%" height="100%%" fill="#fff"/>\n%s\n</svg>\n') % (
                    WIDTH, height, WIDTH, height, STYLE, "\n".join(body + self.parts))


def main():
    if len(sys.argv) != 3:
        sys.exit(__doc__)
    script, text = (open(name, encoding="utf-8").read() for name in sys.argv[1:3])
    told, outcomes = steps(text)
    connections = sorted({int(s[1]) for s in told if s[0] in ("open", "push", "serve", "take")})
    picture = Picture(operations(script), connections)
    for word, k, op, status, acted, _bytes, ups, downs, client, server in told:
        picture.step(word, int(k), int(op), status, acted == "acted", int(ups), int(downs), client, server)
    sys.stdout.write(picture.svg(outcomes))


main()
