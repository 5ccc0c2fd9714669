#!/usr/bin/env python3
"""Checks jobs of version 3: by the second reading in bench/jobs, and against their JSON Schema, as an editor does.
Usage: check_jobs.py [JOB ..]; without words it checks all jobs of examples/jobs/version3. It prints a line for each job, and ends with 1
if one of them is wrong. It needs Python 3.11 or later, and Debian's python3-jsonschema."""
import json
import pathlib
import sys

import one_line

EXAMPLES = pathlib.Path(__file__).resolve().parent.parent
SCHEMA = EXAMPLES / "job-version-3.schema.json"
MOST = 65536
sys.path.insert(0, str(EXAMPLES.parent / "bench" / "jobs"))


def wrong_in(text, schema):
    """What is wrong with a job by the second reading, or else by the schema; None if it is right."""
    import tomllib

    import jobs
    import jsonschema

    if len(text) > MOST:
        return "more than %d bytes" % MOST
    said = jobs.answer(text)
    if not said.startswith("job "):
        return "not of version 3" if said == "older" else said
    fault = jsonschema.exceptions.best_match(jsonschema.Draft7Validator(schema).iter_errors(tomllib.loads(text.decode())))
    return fault and "schema: " + fault.message


def main(*names):
    if sys.version_info < (3, 11):
        raise one_line.Fault("it needs Python 3.11 or later")
    sys.set_int_max_str_digits(0)
    try:
        import jsonschema
    except ImportError as fault:
        raise one_line.Fault("it needs Debian's python3-jsonschema") from fault
    schema, wrong = json.loads(SCHEMA.read_text(encoding="utf-8")), 0
    jsonschema.Draft7Validator.check_schema(schema)
    for name in names or sorted((EXAMPLES / "jobs" / "version3").glob("*.toml")):
        with open(name, "rb") as job:
            fault = wrong_in(job.read(MOST + 1), schema)
        wrong += fault is not None
        yield "%s: %s" % (name if names else name.name, fault or "right")
    if wrong:
        raise one_line.Fault("%d wrong" % wrong)


one_line.run(main)
