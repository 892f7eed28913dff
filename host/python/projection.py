"""A member's projection: salary, accrual rate and annuity factor are gathered, each in its own place, although the services answer last
call first. Prints the member's statement.

    python3 host/python/projection.py
"""
from sozgarru import value_text
from script_host import Desk, capital, factor, money, pension, rate, run

# what the services know: cents a year, basis points of the salary, thousandths
KNOWN = {"salary": 5_200_000, "accrual rate": 175, "annuity factor": 18_450}


async def value_of(desk, what):
    return await desk.ask(what)


async def projection(desk):
    """The script: gathers the three values and returns the capital value of the pension."""
    salary, basis_points, thousandths = await desk.gather(*(value_of(desk, what) for what in KNOWN))
    earned = pension(salary, basis_points)
    print("Statement of member 4711")
    print(f"  place 0  salary a year        {money(salary):>12}")
    print(f"  place 1  accrual rate         {rate(basis_points):>12}")
    print(f"  place 2  annuity factor       {factor(thousandths):>12}")
    print(f"  pension earned in a year      {money(earned):>12}")
    print(f"  its capital value             {money(capital(earned, thousandths)):>12}")
    return capital(earned, thousandths)


def reply(desk):
    """The services: the last call is answered first."""
    if not desk.asked:
        return []
    call, what = desk.asked.popitem()
    print(f"call {call} is answered: {what}")
    return [(call, KNOWN[what])]


def main():
    desk = Desk()
    end = run(desk, projection(desk), reply)
    print(f"the session finished with {value_text(end.value)}")


if __name__ == "__main__":
    main()
