"""Plays a file of the calls `add,ID,V`, `cut,ID` and `get,ID` in sqlite3, on a table in memory with an index, and writes the answers as `desk run` does.

Each call is a transaction, as it is for `desk run`.
"""

import csv
import sqlite3
import sys


def main():
    base = sqlite3.connect(":memory:", isolation_level=None)
    base.execute("create table t (id integer, v integer)")
    base.execute("create index t_id on t (id)")
    out = csv.writer(sys.stdout, lineterminator="\n")
    with open(sys.argv[1], newline="") as calls:
        for number, (name, *args) in enumerate(csv.reader(calls)):
            base.execute("begin")
            if name == "add":
                base.execute("insert into t values (?, ?)", [int(arg) for arg in args])
            elif name == "cut":
                base.execute("delete from t where id = ?", [int(args[0])])
            else:
                rows = base.execute("select v from t where id = ?", [int(args[0])]).fetchall()
                out.writerow([number, name, len(rows)])
                out.writerows(sorted(rows))
            base.execute("commit")


main()
