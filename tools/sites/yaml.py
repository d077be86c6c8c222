"""bin/zuul-config over the sites of the examples and over files of a case's own. A case runs the script some times; the longest one gives
it 300 files with 2,000 projects, and has half a minute for that."""
import json
import os
import shutil
import subprocess
import sys
from pathlib import Path

from live.cases import case, same, with_yaml
from live.peers import PROGRAM, ROOT

from .shared import SMALL, TENANTS, faults, run, write

WORDS_OF_SMALL = ["main.yaml", "main=project-config@project-config", "main=demo@demo"]
WORDS_OF_TENANTS = [
    *["main.yaml", "cloud=common/config@common", "cloud=cloud/compute@compute", "cloud=cloud/network@network"],
    *["docs=common/config@common", "docs=docs/manual@docs", "trial=common/config@common/zuul.d/pipelines.yaml"],
]
MAIN = "- tenant: {name: t, source: {gerrit: {untrusted-projects: [a, b]}}}\n"
FAULTS = {
    "- a: 1\n- b: [\n": "x:3: ",
    "- a: 1\n\t- b\n": "x:2: found a tab",
    "a: 1\n": "x:1: this is no list of items",
    "\n\nwords that are no YAML of Zuul\n": "x:3: this is no list of items",
    "- a: 1\n- b\n": "x:2: this item is no mapping",
    "- a: 1\n- b: 2001-13-01\n": "x:2: this is no value of its tag (month",
    "- a: *b\n": "x:1: found undefined alias",
    "- a: 1\n---\n- b: 1\n": "x:2: but found another document",
    "- a: &a [*a]\n": "x:1: in this item a value stands in itself",
    "- a: " + "[" * 200 + "]" * 200 + "\n": "x:1: this item has too many levels",
    "- &a [1, 1, 1, 1, 1, 1, 1, 1]\n" + "".join(f"- &{b} [{f'*{a}, ' * 7}*{a}]\n" for a, b in zip("abcdefgh", "bcdefghi")): "x: its aliases stand for more",
    "- a:\n  " + "- " * 30_000 + "x\n": "x: too many levels",
}


def made(*words, **settings):
    return run(ROOT / "bin/zuul-config", *words, **settings)


def config_of(*words):
    """The configuration that bin/zuul-config prints for right words."""
    status, document, told = made(*words)
    same((status, told if "--templates" not in words else ""), (0, ""))
    return json.loads(document)


def gives(site, *words):
    """A site gives its configuration, and `check` prints of that what the site's file `check` has."""
    status, document, _ = made(*words, where=site)
    same((status, document), (0, (site / "config.json").read_text()))
    Path("config.json").write_text(document)
    same(run(PROGRAM, "check", "config.json"), (0, (site / "check").read_text(), ""))


def jobs_of(config, project, pipeline="check"):
    stanzas = [item["project"] for item in config["config"]["t"] if item.get("project", {}).get("name") == project]
    return [job for stanza in stanzas for job in stanza.get(pipeline, {}).get("jobs", [])]


@with_yaml
def a_small_site_gives_its_configuration():
    gives(SMALL, *WORDS_OF_SMALL)


@with_yaml
def a_site_of_three_tenants_gives_its_configuration():
    gives(TENANTS, "--templates", *WORDS_OF_TENANTS)
    told = made("--templates", *WORDS_OF_TENANTS, where=TENANTS)[2]
    same(told.splitlines()[0], "bin/zuul-config: in tenant cloud 6 stanzas come of templates")


@with_yaml
def the_example_of_two_tenants_comes_of_its_yaml():
    words = ["main.yaml", "cloud=infra/project-config@cloud.yaml", "infra=infra/project-config@infra.yaml"]
    site = ROOT / "examples/tenants"
    same(json.loads(made(*words, where=site)[1]), json.loads((site / "config.json").read_text()))


@with_yaml
def templates_are_passed_on_where_nobody_asks_for_them():
    config = json.loads(made(*WORDS_OF_TENANTS, where=TENANTS)[1])["config"]["cloud"]
    same(sum("project-template" in item for item in config), 3)
    stanza = next(item["project"] for item in config if item.get("project", {}).get("name") == "cloud/compute")
    same(stanza["templates"], ["docs-jobs", "unit-jobs"])


@with_yaml
def the_files_of_a_checkout_are_those_that_zuul_reads_in_its_order():
    names = ["a.yaml", "a-b.yaml", "a/c.yaml", "z.yaml", "skipped/x.yaml", "skipped/deep/x.yaml"]
    write({"main.yaml": MAIN, "a/zuul.d/skipped/.zuul.ignore": "", "a/zuul.d/other.yml": "- job: {name: no}\n"})
    write({f"a/zuul.d/{name}": f"- job: {{name: {name}}}\n" for name in names})
    write({"a/.zuul.yaml": "- job: {name: no}\n", "b/zuul.d/README": "", "b/.zuul.d/x.yaml": "- job: {name: dotted}\n"})

    def jobs():
        return [item["job"]["name"] for item in config_of("main.yaml", "t=a@a", "t=b@b")["config"]["t"]]

    same(jobs(), ["a-b.yaml", "a.yaml", "a/c.yaml", "z.yaml", "dotted"])
    write({"a/zuul.yaml": "- job: {name: first}\n", "b/.zuul.yaml": "- job: {name: second}\n"})
    same(jobs(), ["first", "second"])


@with_yaml
def a_project_without_a_name_is_that_of_its_file():
    write({"main.yaml": MAIN, "x": "- project: {check: {jobs: [j]}}\n- project: {name: b, check: {jobs: [k]}}\n- project:\n"})
    stanzas = [item["project"] for item in config_of("main.yaml", "t=a@x")["config"]["t"]]
    same(stanzas, [{"name": "a", "check": {"jobs": ["j"]}}, {"name": "b", "check": {"jobs": ["k"]}}, None])


@with_yaml
def templates_come_before_their_stanza_in_the_order_of_its_names():
    stanzas = "- project: {templates: [two, one], check: {jobs: [own]}}\n- project: {check: {jobs: [late]}, templates: [one]}\n"
    defined = "".join(f"- project-template: {{name: {name}, check: {{jobs: [{job}]}}}}\n" for name, job in (("one", 1), ("two", 2), ("one", 3)))
    write({"main.yaml": MAIN, "x": stanzas, "y": defined, "z": "- project: {templates: [none]}\n"})
    config = config_of("--templates", "main.yaml", "t=a@x", "t=b@y")
    same(jobs_of(config, "a"), [2, 1, 3, "own", 1, 3, "late"])
    same([item for item in config["config"]["t"] if "project-template" in item or "templates" in item["project"]], [])
    faults(made("--templates", "main.yaml", "t=a@z", "t=a@y"), 3, "z:1: there is no project-template 'none' in this tenant")


@with_yaml
def tags_are_data_and_are_not_run():
    write({"x": '- a: !!python/object/apply:os.mkdir ["made"]\n- b: !encrypted/pkcs1-oaep [s, t]\n- c: !own {d: !own e}\n'})
    same(config_of("x")["tenants"], [{"a": ["made"]}, {"b": ["s", "t"]}, {"c": {"d": "e"}}])
    same(os.path.exists("made"), False)


@with_yaml
def yaml_is_what_json_can_say_of_it():
    write({"x": "- {a: &a {x: 1, y: 2}, b: {<<: *a, y: 3}, c: 2024-02-29, d: yes, e: .inf, 1: f, g: !!set {z, y}, h: " + "9" * 400 + "}\n"})
    found = {"a": {"x": 1, "y": 2}, "b": {"x": 1, "y": 3}, "c": "2024-02-29", "d": True, "e": "inf", "1": "f", "g": ["y", "z"], "h": "9" * 400}
    same(config_of("x")["tenants"], [found])


@with_yaml
def what_is_wrong_with_a_file_is_a_line_with_its_place():
    for text, told in FAULTS.items():
        write({"x": text})
        faults(made("x"), 3, told)
    Path("x").write_bytes(b"- a: 1\n- b: \xff\n")
    faults(made("x"), 3, "x:2: ")


@with_yaml
def what_is_wrong_with_the_words_or_the_output_is_a_line():
    write({"main.yaml": MAIN, "empty/README": ""})
    faults(made(), 2, "required: MAIN.yaml")
    faults(made("main.yaml", "t=a"), 2, "the word t=a isn't TENANT=PROJECT@PATH")
    faults(made("main.yaml", "--template"), 2, "--template")
    faults(made("none.yaml"), 1, "none.yaml: No such file")
    faults(made("main.yaml", "t=a@none"), 1, "none: No such file")
    faults(made("main.yaml", "t=a@empty"), 1, "empty: there is none of zuul.yaml, zuul.d, .zuul.yaml, .zuul.d")
    faults(made("main.yaml", "u=a@main.yaml"), 3, "main.yaml has no tenant u")
    for where in (">/dev/full", ">&-"):
        faults(made("main.yaml", redirected=where), 1, "standard output")
    told = subprocess.run(f"{{ {ROOT}/bin/zuul-config main.yaml; echo $? >&2; }} | true", shell=True, capture_output=True, text=True).stderr
    same(told in ("bin/zuul-config: fault: standard output: Broken pipe\n1\n", "0\n"), True)


@with_yaml
def explain_gets_the_configuration():
    shutil.copytree(ROOT / "bin", "bin")
    write({"bin/gate": '#!/bin/sh\necho "$1"\ncat "$2"\nexit 7\n', "main.yaml": MAIN})
    same(run("bin/zuul-config", "--explain", "main.yaml"), (7, "explain\n" + made("main.yaml")[1], ""))
    os.remove("bin/gate")
    faults(run("bin/zuul-config", "--explain", "main.yaml"), 1, "bin/gate: No such file")


@case
def without_the_reader_of_yaml_zuul_config_says_what_is_missing():
    faults(run(sys.executable, "-I", "-S", ROOT / "bin/zuul-config", "main.yaml"), 1, "python3-yaml")
    same(run(sys.executable, "-I", "-S", ROOT / "bin/zuul-config", "--help")[0], 0)


def stanza(number):
    jobs = f"[unit-{number}, {{lint: {{voting: false}}}}, docs]"
    return f"- project:\n    name: p{number}\n    templates: [one, two]\n    vars:\n      release: {number}\n    check:\n      jobs: {jobs}\n"


@with_yaml
def two_thousand_projects_in_300_files_give_a_configuration():
    projects = "".join(f"          - p{number}\n" for number in range(2000))
    write({"main.yaml": f"- tenant:\n    name: t\n    source:\n      gerrit:\n        untrusted-projects:\n{projects}"})
    write({"a/zuul.d/0.yaml": "- project-template: {name: one, check: {jobs: [a]}}\n- project-template: {name: two, check: {jobs: [b]}}\n"})
    write({f"a/zuul.d/f{file}.yaml": "\n".join(stanza(number) for number in range(file, 2000, 299)) for file in range(299)})
    config = config_of("--templates", "main.yaml", "t=a@a")
    same(sum("project" in item for item in config["config"]["t"]), 6000)
    write({"config.json": json.dumps(config)})
    same(run(PROGRAM, "check", "config.json")[0], 0)
