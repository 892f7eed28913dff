"""A rate that comes late, comes twice, and a reply to a call that nobody made: nothing that comes too late changes a place that is filled.

    python3 host/python/late_replies.py
"""
import sozgarru
from script_host import Desk, money, rate, run


async def contributions():
    """The contributions of a year are computed without asking anybody: 3,120.00, in cents."""
    return 312_000


async def script(desk):
    """Contributions beside the rate; it returns the list of both."""
    return await desk.gather(contributions(), desk.ask("interest rate"))


# what the rates service sends, batch by batch; basis points: 180 are 1.80 %
BATCHES = [
    ("a reply to call 7, which nobody made", [(7, 1)]),
    ("call 0 is still to come", [(0, sozgarru.FUTURE)]),
    ("call 0 at last, 1.80 %, and again, 9.99 %", [(0, 180), (0, 999)]),
]


def main():
    left = iter(BATCHES)

    def reply(_):
        what, batch = next(left, (None, []))
        if what:
            print(f"the service sends: {what}")
        return batch

    desk = Desk()
    end = run(desk, script(desk), reply)
    amount, basis_points = desk.session.show(end.value.gather).places
    print(f"contributions of the year  {money(amount):>10}")
    print(f"interest rate              {rate(basis_points):>10}")
    try:
        desk.session.result(0, 999)
    except sozgarru.Refused as refusal:
        print(f"a reply after the end: {refusal}")


if __name__ == "__main__":
    main()
