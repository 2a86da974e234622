#!/usr/bin/env python3
"""Prints a job that grows with N, 1 to 8: N tables each give a column to one new table, under a key of their own.
Usage: trial_job.py N"""
import sys

tables = range(int(sys.argv[1]))
print("old")
for t in tables:
    print(f"table t{t} {{ id: int, a: text, b: text }}")
print("new")
for t in tables:
    print(f"table t{t} {{ id: int, a: text, k: key }}")
print("table pool { k: key, b: text }")
for t in tables:
    print(f"link t{t}.k = pool.k;")
print("program")
for t in tables:
    print(f"update add{t}(id: int, a: text, b: text) {{\n  insert into t{t} {{ t{t}.id = id, t{t}.a = a, t{t}.b = b }};\n}}")
    print(f"update del{t}(id: int) {{\n  delete t{t} from t{t} where t{t}.id = id;\n}}")
    print(f"query get{t}(id: int) {{\n  select t{t}.a, t{t}.b from t{t} where t{t}.id = id;\n}}")
