"""How trains and turnouts stand, and when: the lines TRAINS and TURNOUTS of docs/CLIENTS.md, and the time of a turn, by
docs/RAILWAY.md. A turn lasts 5.796 to 10.740 ms."""

from server_checks.common import LAYOUT, POWER_OFF, POWER_ON, holds, receive, same, send, serve
from server_checks.railway import INTERROGATION, OVAL, THROW_2, report, reports_in
from server_checks.trains import CV29, answers, block, driven, files, joint, loco, train
from serving import Client, message_hex

LINE = block("line", 1000, 1) + block("section", 1000, 2) + joint("line.b", "section.a")


def asked(client, word):
    client.write([word])
    return client.lines_until(f"{word} OK")


def trains():
    """TRAINS: the asker alone receives where each train is, and how fast it runs; without a plan, that there is none"""
    # Fronts of 400 and 700 mm from end a of a metre: the fourth and the seventh tenth.
    plan = [LINE, train("one", "line", 400, "b", 100, 126), train("two", "section", 700, "a", 50, 100)]
    with files([loco("one", 1, CV29[126]), loco("two", 2, CV29[126])], plan) as options:
        with serve(*options, "--turns", "0") as server, Client(server) as client, Client(server) as other:
            two = "TRAIN two section 7 a section 0"
            same("at first", asked(client, "TRAINS"), ["TRAIN one line 4 b line 0", two, "TRAINS OK"])
            # At 126 mm/s it goes at most 14 mm in ten turns.
            answers(client, [*send(POWER_ON), *driven(1, 126, 127, False), "TURNS 10"])
            same("as it runs", asked(client, "TRAINS"), ["TRAIN one line 4 b line 126", two, "TRAINS OK"])
            # Its front passes 950 to 1,100 mm in 750 turns of 5.796 to 8 ms or so: it lies in both blocks then.
            found = []
            for _turn in range(80):
                answers(client, ["TURNS 10"])
                found += asked(client, "TRAINS")[:1]
            holds(f"in two blocks: {found[-1]}", "TRAIN one section 0 b line 126" in found)
            other.write(send("81 7E"))
            heard = [line for line in other.lines_until("SENT OK") if line.startswith("TRAIN")]
            same("the other", heard, [])
    with serve(*LAYOUT) as server, Client(server) as client:
        for word in ("TRAINS", "TURNOUTS"):
            same("without a plan", asked(client, word), [f"{word} OK"])


def turnouts():
    """TURNOUTS: how each turnout lies, in the order of the plan; a train under one that is thrown is derailed"""
    with serve(*OVAL, "--turns", "4") as server, Client(server) as client:
        same("at first", asked(client, "TURNOUTS"), ["TURNOUT 1 closed", "TURNOUT 2 closed", "TURNOUTS OK"])
        answers(client, send(POWER_ON, THROW_2))
        same("then", asked(client, "TURNOUTS"), ["TURNOUT 1 closed", "TURNOUT 2 thrown", "TURNOUTS OK"])
        # Turned off, it lies as it did.
        answers(client, send(message_hex(0xB0, 0x01, 0x00)))
        same("with its output off", asked(client, "TURNOUTS")[1], "TURNOUT 2 thrown")


def time_of_a_turn():
    """--plan, --turns: trains run through a turn as it begins, with the power that the track has then"""
    # 30 mm to the end of the block, at 10 m/s: 58 mm in the shortest turn.
    plan = [LINE, train("fast", "line", 970, "b", 100, 10000)]
    with files([loco("fast", 1, CV29[126])], plan) as options:
        with serve(*options, "--turns", "0") as server, Client(server) as client:
            answers(client, [*send(POWER_ON), *driven(1, 126, 127, False)])
            found = []
            for _turn in range(8):
                found = answers(client, ["TURNS 1"])
                if " stop " not in asked(client, "NODES")[0]:
                    break
            same("in the turn in which it starts", reports_in(found), [report(2, True)])
            # What has passed stays, whatever comes then.
            found = answers(client, [*send(POWER_OFF), "TURNS 1000", *send(POWER_ON)])
            same("without power", reports_in(found), [])


def interrogations():
    """--plan: interrogations wait in no queue: of five with the track off each is answered, and a throw is accepted then"""
    with serve(*OVAL, "--turns", "0") as server, Client(server) as client:
        for _ in range(5):
            found = reports_in(answers(client, send(*INTERROGATION)))
            same("reports", found, [report(1, True), report(2, False), report(3, False), report(4, True), report(5, False)])
        thrown = answers(client, send(THROW_2))
        same("a throw", thrown, [*receive(THROW_2), "SENT OK"])
