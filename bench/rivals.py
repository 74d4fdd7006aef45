"""The command lines of other programs for the inner joins by one key, in the order of the left table's rows and then the right one's.

Each loads both files, joins, and writes the same bytes as radixjoin. The keys of `text_key` are texts, those of the others whole numbers."""
import pathlib
import shutil
import subprocess

TABLES = (("left", "l", "a"), ("right", "r", "b"))


def sqlite3(workload, data):
    """The files are loaded into a database in memory."""
    key = "INTEGER" if workload.keys == "int" else "TEXT"
    tables = (f"CREATE TABLE {name}(k {key}, {column} TEXT);\n.import --skip 1 {workload.file(data, side)} {name}\n" for side, name, column in TABLES)
    script = data / "join.sqlite"
    script.write_text("".join(tables) + "SELECT l.k, a, b FROM l JOIN r ON l.k = r.k ORDER BY l.rowid, r.rowid;\n")
    return ["sqlite3", "-csv", "-header", "-newline", "\n", ":memory:", f".read {script}"]


def pandas(workload, data):
    """Two frames, merged. No text is taken for a missing value. (An inner merge doesn't keep the order of the left rows; that of all left rows does.)"""
    key = "int64" if workload.keys == "int" else "str"
    frames = ", ".join(
        f"pd.read_csv({str(workload.file(data, side))!r}, dtype={{'k': {key!r}, {column!r}: 'str'}}, keep_default_na=False)" for side, _, column in TABLES
    )
    script = data / "join.pandas"
    script.write_text(f"import sys\nimport pandas as pd\nleft, right = {frames}\nleft.merge(right, on='k', how='left', sort=False).dropna(subset='b').to_csv(sys.stdout, index=False)\n")
    return ["/usr/bin/python3", script]


def miller(workload, data):
    """The right file is kept in memory, and the left one streams past it."""
    left, right = (workload.file(data, side) for side, _, _ in TABLES)
    return ["mlr", "--csv", "join", "-j", "k", "-f", right, "then", "reorder", "-e", "-f", "b", left]


def postgres(workload, data):
    """One server process without a client, and unlogged tables: both files are copied in, and the result out."""
    commands = next(iter(sorted(pathlib.Path("/usr/lib/postgresql").glob("*/bin"), reverse=True)))
    place = data / "postgres"
    as_postgres = ["runuser", "-u", "postgres", "--"]
    if not place.exists():
        place.mkdir()
        shutil.chown(place, "postgres")
        subprocess.run([*as_postgres, commands / "initdb", "-N", "-D", place], check=True, stdout=subprocess.DEVNULL)
    key = "bigint" if workload.keys == "int" else "text"
    lines = ["SET work_mem = '1GB'"]
    for side, name, column in TABLES:
        lines += [f"CREATE UNLOGGED TABLE {name}(k {key}, {column} text)", f"COPY {name} FROM '{workload.file(data, side)}' CSV HEADER"]
    lines += ["COPY (SELECT l.k, a, b FROM l JOIN r ON l.k = r.k ORDER BY l.ctid, r.ctid) TO PROGRAM 'cat >&3' CSV HEADER", "DROP TABLE l", "DROP TABLE r"]
    script = data / "join.postgres"
    script.write_text("".join(f"{line}\n" for line in lines))
    # (a server alone prints its prompts on standard output)
    serve = f"{commands / 'postgres'} --single -D {place} postgres <{script} 3>&1 >{place}/prompts 2>{place}/log"
    return [*as_postgres, "sh", "-c", serve]


RIVALS = {it.__name__: it for it in (sqlite3, pandas, miller, postgres)}
