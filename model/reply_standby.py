"""Blocks of `reply_script.py` about requests for edits that wait, and edits whose replies wait for a standby. Each is a function of a script.

Times are milliseconds. A standby's request rests for two seconds; an edit's reply waits for five, and after five without a standby edits are refused.
"""
from listening import END, Peer, Standby, Unheard, Unsent, listen as listen_to, logged
from reply_stand import put, request, text_of

STATUS = request("GET", "/admin/status")
ONE, TWO, THREE = put(1), put(2), put(3)


def listen(script, *peers, **said):
    listen_to(script, *peers, spelled=text_of, **said)


def since(number, query=""):
    """A request for the edits from a number on."""
    return request("GET", f"/admin/edits/from/{number}{query}")


def has(number):
    """The request of a standby that has the edits up to this one."""
    return since(number + 1, "?standby")


def resting(script):
    script.say("Requests for the edit after the last one wait for it, for as long as they say.")
    script.disk(4096)
    script.admin()
    rests, other = since(1, "?wait=9"), since(1, "?x=1&wait=60&wait=1")
    listen(
        script,
        Peer((0, rests), (600, END), answered=[rests], last=500),
        Peer((0, other), (600, END), answered=[other], last=500),
        Peer((500, ONE), (700, END), answered=[ONE], comes=500, last=500),
        order=[2, 0, 1], log=logged((1, 1, "closed"), (2, 1, "closed"), (3, 1, "closed")), time=700,
    )
    script.note("If there is none, they are answered then: a second, a minute at most, and at once what waits for none, or for none that comes next.")
    second, most = since(2, "?wait=1"), since(2, "?wait=61")
    listen(script, Peer((0, second), (1500, END), answered=[second], last=1000), log=logged((1, 1, "closed")), time=1500)
    listen(script, Peer((0, most), (60_100, END), answered=[most], last=60_000), log=logged((1, 1, "closed")), time=60_100)
    at_once = [since(2), since(2, "?wait=0"), since(2, "?wait=x"), since(2, "?wait="), since(2, "?wait=1000000000"), since(2, "?waits=9"),
               since(1, "?wait=9"), since(3, "?wait=9"), request("HEAD", "/admin/edits/from/2?wait=9"), request("POST", "/admin/edits/from/2?wait=9")]
    listen(script, *(Peer((0, asked), (1, END), answered=[asked]) for asked in at_once),
           log=logged(*((number, 1, "closed") for number in range(1, len(at_once) + 1))), time=1)
    script.note("What is sent behind one that rests is answered after it. A standby's rests as any other, where edits don't need one.")
    standby = since(2, "?standby&wait=9")
    listen(
        script,
        Peer((0, standby + STATUS), (600, END), answered=[standby, STATUS], last=500),
        Peer((500, TWO), (700, END), answered=[TWO], comes=500, last=500),
        order=[1, 0, 0], log=logged((1, 2, "closed"), (2, 1, "closed")), time=700,
    )


def confirmed(script):
    script.say("Where edits need a standby, none is made before one was heard of, and the reply to one is sent once a standby has it.")
    script.disk(4096)
    script.standby()
    edits = [ONE, request("DELETE", "/features/1"), *(request("POST", path, b"x") for path in ("/edits", "/admin/edits", "/admin/edits/at/1"))]
    listen(script, *(Peer((0, edit), (1, END), answered=[Unheard()]) for edit in edits),
           log=logged(*((number, 1, "closed") for number in range(1, len(edits) + 1))), time=1)
    script.note("It asks, an edit is made, others see it, and what isn't a standby's, or has more than there is, or is of another method confirms nothing.")
    others = [since(2), since(3, "?standby"), since(2, "?standbys"), since(2, "?standby=1"), request("HEAD", "/admin/edits/from/2?standby"),
              request("POST", "/admin/edits/from/2?standby")]
    shown = request("GET", "/features/1")
    listen(
        script,
        Peer((0, has(0)), (900, STATUS), (1000, has(1)), (1100, STATUS), (1200, END),
             answered=[has(0), Standby(STATUS, 0, 0), has(1), Standby(STATUS, 1, 0)], last=1100),
        Peer((100, ONE), (2000, END), answered=[ONE], comes=100, last=1000),
        *(Peer((500, asked), (501, END), answered=[asked], comes=500, last=500) for asked in [shown, *others]),
        order=[0, 1, *range(2, 9), 0, 0, 0],
        log=logged(*((number, 1, "closed") for number in range(3, 10)), (1, 4, "closed"), (2, 1, "closed")), time=2000,
    )
    script.note("Requests that were sent together: each is answered after the reply before it was sent.")
    listen(
        script,
        Peer((0, has(1)), (1000, has(2)), (2000, has(3)), (2500, END), answered=[has(1), has(2), has(3)], last=2000),
        Peer((100, TWO + THREE + shown), (3000, END), answered=[TWO, THREE, shown], comes=100, last=2000),
        order=[0, 1, 0, 1, 0, 1], log=logged((1, 3, "closed"), (2, 3, "closed")), time=3000,
    )
    script.note("What changes nothing waits for nobody.")
    gone, shut = request("DELETE", "/features/9"), request("POST", "/admin/edits/at/9", b'{"changes":[{"delete":1}]}')
    listen(
        script,
        Peer((0, has(3)), (500, END), answered=[has(3)]),
        Peer((100, gone), (200, shut), (500, END), answered=[gone, shut], comes=100, last=200),
        order=[0, 1, 1], log=logged((1, 1, "closed"), (2, 2, "closed")), time=500,
    )
    script.note("A standby's request rests for two seconds, and is answered by the edit, which that confirms to nobody.")
    rests, again = since(4, "?standby&wait=30"), since(5, "?wait=30&standby")
    listen(
        script,
        Peer((0, rests), (2500, rests), (3500, again), (7000, END), answered=[rests, rests, again], last=5500),
        Peer((3000, ONE), (7000, END), answered=[ONE], comes=3000, last=3500),
        order=[0, 1, 0, 0], log=logged((1, 3, "closed"), (2, 1, "closed")), time=7000,
    )


def away(script):
    script.say("A standby that comes no more: the reply that waits isn't sent, and edits are refused from then on.")
    script.disk(4096)
    script.standby()
    listen(
        script,
        Peer((0, has(0)), (5300, STATUS), (6000, END), answered=[has(0), Standby(STATUS, 0, 5)], last=5300),
        Peer((100, ONE), answered=[Unsent(ONE)], comes=100),
        Peer((5200, TWO), (6000, END), answered=[Unheard()], comes=5200, last=5200),
        order=[0, 1, 2, 0], log=logged((2, 0, "unconfirmed"), (1, 2, "closed"), (3, 1, "closed")), time=6000,
    )
    script.note("One that is there and lacks an edit for five seconds is none. Once it has it, edits are made again.")
    script.standby()
    listen(
        script,
        Peer((0, has(1)), (3000, has(1)), (6000, has(1)), (6200, has(2)), (6400, has(3)), (9000, END),
             answered=[has(1), has(1), has(1), has(2), has(3)], last=6400),
        Peer((100, TWO), answered=[Unsent(TWO)], comes=100),
        Peer((6100, THREE), (6300, THREE), (9000, END), answered=[Unheard(), THREE], comes=6100, last=6400),
        order=[0, 1, 0, 0, 2, 0, 2, 0], log=logged((2, 0, "unconfirmed"), (1, 5, "closed"), (3, 2, "closed")), time=9000,
    )
    script.note("After a start no edit is made before a standby has all that there are.")
    script.standby()
    listen(
        script,
        Peer((0, has(2)), (200, has(3)), (400, has(4)), (500, END), answered=[has(2), has(3), has(4)], last=400),
        Peer((100, ONE), (300, ONE), (500, END), answered=[Unheard(), ONE], comes=100, last=400),
        order=[0, 1, 0, 1, 0], log=logged((1, 3, "closed"), (2, 2, "closed")), time=500,
    )


BLOCKS = [resting, confirmed, away]
