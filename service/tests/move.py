#!/usr/bin/env python3
"""The move to the next roster, rehearsed: services stop, all make one plan, and new services have what lives on.

    python3 move.py [--folder F] [--keep]

Members 1, 2 and 3 have a roster; in the next one are 1, 2 and 4. Each key that member 1 or 2 wrote last is put by that
one, and those of member 3 and one that two wrote without knowing of one another by member 1, who is elected.
"""

import argparse
import asyncio
import os
import shutil
import subprocess
import sys
import tempfile

import members
from asking import Gone
from cases import SERVICE
from members import Failed

TOOL = os.path.join(SERVICE, "next_roster")
CTL = os.path.join(SERVICE, "depotctl")
HEIGHT = 6


def tool(path, *words, status=0):
    """What a tool prints; Failed where its status is another."""
    ran = subprocess.run([sys.executable, "-B", path, *words], stdout=subprocess.PIPE, stderr=subprocess.STDOUT)
    if ran.returncode != status:
        raise Failed("%s ended with %d: %s" % (words, ran.returncode, ran.stdout.decode()))
    return ran.stdout.decode()


async def alone(process, key, value):
    """A put of a member that talks to nobody meanwhile."""
    await process.start().ready()
    await process.client.put(key, value)
    await process.end()


async def used(cluster):
    """Three members that write, exchange and stop."""
    nodes = cluster.mesh((1, 2, 3))
    await alone(nodes[1], b"both", b"of 1")
    await alone(nodes[2], b"both", b"of 2")
    await asyncio.gather(*(it.start().ready() for it in nodes.values()))
    try:
        for node, it in nodes.items():
            for at in range(20):
                await it.client.put(b"%d/%d" % (node, at), b"value %d" % at)
        await nodes[1].client.ask("DELETE", "/v1/values/1%2F0")
        await members.in_step([*nodes.values()])
        told = tool(CTL, "--at", "127.0.0.1:%d" % nodes[2].http, "keys")
        if len(told.splitlines()) != 61:
            raise Failed("depotctl keys: %s" % told)
        await members.ended(nodes.values())
    finally:
        for it in nodes.values():
            it.kill()


def planned(cluster, following, folder):
    """The plans of members 1 and 2, which are the same: the folder of each."""
    plans, hashes = {}, set()
    for node in (1, 2):
        room = os.path.join(folder, "plan-of-%d" % node)
        notes, decided = room + ".notes", room + ".decided"
        hashes.add(tool(TOOL, "notes", cluster.journal(node), notes))
        with open(notes, encoding="utf-8") as file:
            text = file.read()
        with open(decided, "w", encoding="utf-8") as file:
            file.write(text.replace('decide "both"', 'put "both" "of both"'))
        tool(TOOL, "plan", cluster.journal(node), notes, following.roster, "1", room, status=1)
        hashes.add(tool(TOOL, "plan", cluster.journal(node), decided, following.roster, "1", room))
        plans[node] = room
    if len(hashes) != 2:
        raise Failed("the two make other notes, or other plans: %s" % hashes)
    return plans


async def moved(following, plans):
    """New services, in which each puts what the plan gives it; all come to have the same, and a second put finds all there."""
    nodes = following.mesh((1, 2, 4))
    await asyncio.gather(*(it.start().ready() for it in nodes.values()))
    try:
        for node in (1, 2):
            told = tool(TOOL, "put", os.path.join(plans[node], "changes-%d" % node), "127.0.0.1:%d" % nodes[node].http)
            print("member %d: %s" % (node, told.strip()))
        await members.in_step([*nodes.values()])
        again = tool(TOOL, "put", os.path.join(plans[2], "changes-2"), "127.0.0.1:%d" % nodes[2].http)
        if again != "put 0 statements, 2 were there\n":
            raise Failed("a second put: %s" % again)
        await members.ended(nodes.values())
    finally:
        for it in nodes.values():
            it.kill()
    for node in (1, 2, 4):
        print("member %d: %s" % (node, tool(TOOL, "check", following.journal(node), os.path.join(plans[1], "plan")).strip()))


async def rehearse(folder):
    """All of it."""
    cluster = members.Cluster(os.path.join(folder, "old"), {1: HEIGHT, 2: HEIGHT, 3: HEIGHT})
    await used(cluster)
    following = members.Cluster(os.path.join(folder, "next"), {1: HEIGHT, 2: HEIGHT, 4: HEIGHT})
    await moved(following, planned(cluster, following, folder))


def main():
    """Reads the words; the status."""
    parser = argparse.ArgumentParser(description=__doc__, formatter_class=argparse.RawDescriptionHelpFormatter)
    parser.add_argument("--folder")
    parser.add_argument("--keep", action="store_true")
    words = parser.parse_args()
    folder, why = words.folder or tempfile.mkdtemp(prefix="depot-move-"), ""
    try:
        asyncio.run(rehearse(folder))
    except (Failed, Gone) as fault:
        why = str(fault)
    if not words.keep:
        shutil.rmtree(folder)
    print("move: %s" % (why or "ok"))
    return 1 if why else 0


if __name__ == "__main__":
    sys.exit(main())
