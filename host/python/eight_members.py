"""Eight members at once, each a session on a thread of its own: a session is plain memory, and the library has no state that they share.

    python3 host/python/eight_members.py
"""
from concurrent.futures import ThreadPoolExecutor

from script_host import Desk, capital, money, pension, run

MEMBERS = range(1, 9)


async def script(desk):
    """Three calls, gathered by place; it returns the capital value."""
    salary, basis_points, thousandths = await desk.gather(desk.ask("salary"), desk.ask("accrual rate"), desk.ask("annuity factor"))
    return capital(pension(salary, basis_points), thousandths)


def known(member, what):
    """What the services know of a member: cents, basis points, thousandths."""
    return {"salary": 4_000_000 + 250_000 * member, "accrual rate": 175, "annuity factor": 18_450 - 150 * member}[what]


def project(member):
    def reply(desk):
        """One answer at a time; which of the calls comes next differs from member to member."""
        if not desk.asked:
            return []
        call = sorted(desk.asked)[member % len(desk.asked)]
        return [(call, known(member, desk.asked.pop(call)))]

    desk = Desk()
    return run(desk, script(desk), reply).value


def main():
    with ThreadPoolExecutor(len(MEMBERS)) as threads:
        for member, value in zip(MEMBERS, threads.map(project, MEMBERS)):
            print(f"member {member}: capital value {money(value):>12}")


if __name__ == "__main__":
    main()
