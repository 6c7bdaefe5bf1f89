"""Checks the completion in packaging/booth.bash with a real bash, for tests/installed.py.

It is imported by tests/installed.py, and not run by itself.
"""

import os
import re
import shlex
import shutil

from checks import need
from shells import run

TOP = os.path.dirname(os.path.dirname(os.path.abspath(__file__)))
# the file of bash-completion that shells source
BASH_COMPLETION = "/usr/share/bash-completion/bash_completion"


def completed(*words, line="", before=""):
    """Returns what bash offers for this line, which it has split into these words. Before that it runs the program
    `before`.
    """
    script = (
        f"{before}\nsource {TOP}/packaging/booth.bash; COMP_WORDS=(\"$@\"); COMP_CWORD=$(($# - 1)); "
        f"COMP_LINE={shlex.quote(line)}; COMP_POINT=${{#COMP_LINE}}; "
        '_booth_complete "$1"; printf "%s\\n" "${COMPREPLY[@]}"'
    )
    done = run("bash", "-c", script, "bash", *words)
    need(not done.stderr, done.stderr)
    return done.stdout.splitlines() if done.stdout.strip() else []


def completion_offers(room):
    """completion offers commands, options, members and tickets in a real bash"""
    if not shutil.which("bash"):
        return "bash is not here"
    conf = f"{room}/a.conf"
    with open(conf, "w", encoding="utf-8") as file:
        file.write(
            'site = "192.0.2.10" # one\narbitrator=\'192.0.2.30\'\nticket = "__default__"\n  expire = 60\n'
            'ticket="db8"\nticket = mail # the other\n'
        )
    told = run(f"{TOP}/packaging/booth-status", "--help").stdout
    status_options = re.findall(r"(?:^ +|, )(--?[A-Za-z][a-z-]*)", told, re.M)
    cases = [
        (("boothd", ""), ["daemon", "status", "sim", "audit", "help"]),
        (("boothd", "-"), ["-h", "--help", "-V", "--version"]),
        (("booth", "--h"), ["--help"]),
        (("booth", "help", ""), []),
        (("booth", "gr"), ["grant"]),
        (("booth", "s"), ["show", "status"]),
        (("booth", "show", "-c", conf, ""), ["db8", "mail"]),
        (("booth", "show", "-c", conf, "-t", "m"), ["mail"]),
        (("booth", "show", "-"), ["-c", "-s", "-t", "-j", "--json", "--tcp", "--udp", "--help", "--version"]),
        (("booth", "status", "-"), ["-c", "-s", "--tcp", "--udp", "--help", "--version"]),
        (("booth", "status", "-c", conf, ""), []),
        (("booth", "client", "re"), ["revoke"]),
        (("booth", "grant", "-c", conf, ""), ["db8", "mail"]),
        (("booth", "revoke", "-c", conf, "d"), ["db8"]),
        (("booth", "move", "-c", conf, ""), ["db8", "mail"]),
        (("booth", "client", "move", "-w", "-c", conf, "m"), ["mail"]),
        (("booth", "move", "-c", conf, "db8", ""), ["192.0.2.10"]),
        (("booth", "client", "move", "db8", "-c", conf, "-w", "1"), ["192.0.2.10"]),
        (("booth", "move", "-c", conf, "-t", "db8", ""), ["192.0.2.10"]),
        (("booth", "move", "-"), ["-c", "-s", "-t", "-w", "-f", "--force", "--tcp", "--udp", "--help", "--version"]),
        (("booth", "revoke", "-"), ["-c", "-s", "-t", "-w", "--tcp", "--udp", "--help", "--version"]),
        (("boothd", "daemon", "-c", conf, "-s", ""), ["192.0.2.10", "192.0.2.30"]),
        (("boothd", "status", "-"), ["-l", "--help", "--version"]),
        (("boothd", "sim", "-"), ["-c", "-e", "-r", "--help", "--version"]),
        (("boothd", "audit", "-"), ["-c", "--help", "--version"]),
        (("boothd", "audit", "-c", conf, f"{room}/fold"), [f"{room}/folder/"]),
        (("geostore", ""), ["set", "get", "delete", "list", "help"]),
        (("geostore", "client", "d"), []),
        (("geostore", "get", "-c", conf, "-t", "m"), ["mail"]),
        (("geostore", "list", "-c", conf, "-s", "192.0.2.1"), ["192.0.2.10"]),
        (("geostore", "set", "-"), ["-c", "-s", "-t", "--tcp", "--udp", "--help", "--version"]),
        (("geostore", "set", "-c", conf, "-t", "db8", ""), []),
        (("booth", "grant", "-c", f"{room}/none.conf", ""), []),
        (("booth-follow", "-"), ["-c", "-s", "-d", "-m", "-k", "-r", "--restart-on-term", "--help", "--version"]),
        (("booth-follow", "-c", conf, "-s", ""), ["192.0.2.10"]),
        (("booth-follow", "-c", conf, "-m", "5", "d"), ["db8"]),
        (("booth-follow", "-m", ""), []),
        (("booth-follow", "-c", conf, "db8", f"{room}/fold"), [f"{room}/folder/"]),
        (("booth-service", ""), ["pause", "resume", "clear", "show"]),
        (("booth-setup", ""), ["init", "join"]),
        (("booth-setup", "init", "--a"), ["--arbitrator", "--acquire-after", "--address", "--allow-basebackup"]),
        (("booth-setup", "init", "--site", ""), []),
        (("booth-setup", "join", "--"), ["--postgresql", "--keep-records", "--root", "--dry-run", "--help", "--version"]),
        (("booth-setup", "join", f"{room}/a."), [conf]),
        (("booth-service", "-"), ["-h", "--help", "-V", "--version"]),
        (("booth-switchover", "-c", conf, ""), ["db8", "mail"]),
        (("booth-switchover", "-c", conf, "-t", "9", "db8", ""), ["192.0.2.10"]),
        (("booth-switchover", "-t", ""), []),
        (("booth-status", "-"), status_options),
        (("booth-status", "--me"), ["--metrics", "--members"]),
        (("booth-status", "-c", f"{room}/a."), [conf]),
        (("booth-status", "--check", f"{room}/a."), [conf]),
        (("booth-status", "--conf", conf, "-f", ""), ["db8", "mail"]),
        (("booth-status", "-t", ""), []),
        (("booth-status", "--do"), ["--doctor"]),
        (("booth-status", "--serve", ""), ["127.0.0.1:9930"]),
        (("booth-status", "--serve", "-w"), ["-w"]),
        (("booth-record", f"{room}/folder/"), [f"{room}/folder/61.rec"]),
        (("booth-record", f"{room}/fold"), [f"{room}/folder/"]),
        (("booth-record", "--c"), ["--conf"]),
        (("booth-record", "sil"), ["silence"]),
        (("booth-record", "silence", "-c", conf, "db"), ["db8"]),
        (("booth-record", "silence", "-c", conf, "db8", f"{room}/fold"), [f"{room}/folder/"]),
        (("boothd", "daemon", "-d", f"{room}/fold"), [f"{room}/folder/"]),
        (("boothd", "daemon", "-c", f"{room}/fold"), [f"{room}/folder/"]),
    ]
    os.makedirs(f"{room}/folder")
    with open(f"{room}/folder/61.rec", "wb"):
        pass
    for words, offered in cases:
        got = completed(*words)
        need(got == offered, f"{' '.join(words)}: {got}")
    # a ticket's name is never run as a command: nothing in it is expanded, not even on the command line
    names = [f"$(touch {room}/ran)", f"`touch {room}/ran`", f"$(touch${{IFS}}{room}/ran)", "it's", 'two" words', "*"]
    odd = f"{room}/odd.conf"
    with open(odd, "w", encoding="utf-8") as file:
        file.writelines(f"ticket = '{name}'\n" if "'" not in name else f'ticket = "{name}"\n' for name in names)
    got = completed("booth", "grant", "-c", odd, "")
    need(not os.path.exists(f"{room}/ran"), "a name of a configuration was run as a program")
    shell = run("bash", "-c", f"printf '%s\\n' {' '.join(got)}")
    need(shell.stdout.splitlines() == names, f"{got} is read as {shell.stdout}{shell.stderr}")
    return None


def completion_joins_addresses(room):
    """completion continues behind the colons of an address, at which bash parts it"""
    if not shutil.which("bash") or not os.path.exists(BASH_COMPLETION):
        return "bash or bash-completion is not here"
    conf = f"{room}/v6.conf"
    with open(conf, "w", encoding="utf-8") as file:
        file.write("site = '2001:db8::10'\nsite = '2001:db8::11'\narbitrator = '2001:db8::2'\n")
        file.write("ticket = a:b\nticket = mail\n")
    cases = [
        (f"booth list -c {conf} -s 2001:db8::1", ["10", "11"]),
        (f"booth list -c {conf} -s 2001:", ["db8::10", "db8::11", "db8::2"]),
        (f"booth list -c {conf} -s 2", ["2001:db8::10", "2001:db8::11", "2001:db8::2"]),
        (f"booth grant -s 2001:db8::10 -c {conf} a:", ["b"]),
        (f"booth grant -s 2001:db8::10 -c {conf} m", ["mail"]),
    ]
    for line, offered in cases:
        words = [word for word in re.split("(:+)| ", line) if word]
        got = completed(*words, line=line, before=f"source {BASH_COMPLETION}")
        need(got == offered, f"{line}: {got}")
    return None
