"""A branch hangs: another office does not answer. The lines say which call is missing and which place is open; the operator cancels the
branch and takes the values that are there.

    python3 host/python/cancel.py
"""
import sozgarru
from script_host import Desk, money, run

PLACES = ["own pension", "state pension"]


async def own_pension():
    """Computed here, in cents a month."""
    return 91_000


async def state_pension(desk):
    """Asked of another office."""
    return await desk.ask("state pension")


async def script(desk):
    return await desk.gather(own_pension(), state_pension(desk))


def print_places(desk, gather):
    """What is there of the gather, place by place."""
    for what, place in zip(PLACES, desk.session.show(gather).places):
        print(f"  {what:<15}{'open' if place is None else money(place):>10}")


def refusal(event, *arguments):
    try:
        event(*arguments)
    except sozgarru.Refused as refused:
        return refused
    raise AssertionError("it was not refused")


def main():
    desk = Desk()
    gather = 2  # the third object that the script makes
    waits = run(desk, script(desk), lambda _: [])
    for call in waits.calls:
        print(f"the session waits for call {call}: {desk.asked[call]}")
    print_places(desk, gather)

    # the tasks are numbered as the gather's items: own pension 1, state pension 2
    hung = 2
    print(f"the operator may not cancel main: {refusal(desk.session.cancel, sozgarru.MAIN)}")
    queued = desk.session.cancel(hung)
    print(f"the operator cancels task {hung}; tasks taken out of the ready queue: {queued}")
    print(f"cancelled already: {refusal(desk.session.cancel, hung)}")

    # the office answers after all: nobody waits for it, and the gather stays open
    desk.session.result(0, 124_000)
    assert desk.session.resume() == sozgarru.Stalled()
    print("nothing is left to run; the statement has what is there:")
    print_places(desk, gather)


if __name__ == "__main__":
    main()
