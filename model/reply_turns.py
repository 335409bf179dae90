"""Blocks of `reply_script.py` about connections that are read only so often. Each is a function of a script."""
from reply_stand import A, put, request


def each_number(script):
    stream = put(7) + A
    script.say("A feature and its tile, byte by byte, with each number of reads: requests that were read are answered, and the others aren't.")
    script.disk(8192)
    for most in range(len(stream) + 3):
        script.turns(most)
        script.ask(stream, sizes="1")
    script.turns()
    script.ask(stream, sizes="1")


def in_pieces(script):
    stream = put(8) + A + request("DELETE", "/features/8") + A
    script.say("The same in larger pieces, the last of them a part of one.")
    for size in (7, 64, 100, len(stream) - 1, len(stream), len(stream) + 1):
        for most in sorted({0, 1, 2, 3, len(stream) // size, -(-len(stream) // size), -(-len(stream) // size) + 1}):
            script.turns(most)
            script.ask(stream, sizes=str(size))
    script.turns()


def other_ends(script):
    closing = A.replace(b"host: a", b"host: a\r\nconnection: close")
    script.say("A request that closes, a head at fault, one that is cut short, and an input that stays open: the earlier end counts.")
    for held in (closing, A + closing, b"GET /\x01", b"GET /map/0", A + b"GET /map/0"):
        for most in (0, 1, 2, len(held) - 1, len(held), len(held) + 1):
            script.turns(most)
            script.ask(held, sizes="1")
            script.ask(held, sizes="4096")
            script.wait(held, sizes="1")
    script.turns()


BLOCKS = [each_number, in_pieces, other_ends]
