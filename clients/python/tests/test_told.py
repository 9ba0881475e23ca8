"""What is printed of a user and of a row of thermo."""
import pickle
from typing import Any


from ljclient import Thermo, ThermoInKelvin, connect
from support import TOKEN, Server, dimer

# Of the dimer at step 0, in epsilon, as worked out in test_sampling.
KINETIC, POTENTIAL = 589**2 / 2**34, -5349132 / 2**24


def test_a_row_in_reduced_units_says_them(user: Any) -> None:
    (row,) = dimer(user).thermo(every=1, rows=1)
    energies = f"kinetic {KINETIC:.6g}, potential {POTENTIAL:.6g} and total energy {KINETIC + POTENTIAL:.6g} epsilon"
    assert str(row) == f"step 0: temperature {KINETIC / 3:.6g} epsilon / k_B; {energies}"
    assert repr(row).startswith("Thermo(step=0, temperature=6.7")


def test_a_row_in_kelvin_says_so(user: Any) -> None:
    (row,) = dimer(user, epsilon=0.0103, mass=40).thermo(every=1, rows=1)
    kelvin = KINETIC / 3 * 0.0103 / 8.617333262e-5
    assert str(row).startswith(f"step 0: temperature {kelvin:.6g} K; kinetic {KINETIC:.6g}, ")
    assert repr(row).startswith("ThermoInKelvin(step=0, temperature=0.00080")


def test_a_row_is_the_tuple_that_it_was(user: Any) -> None:
    (row,) = dimer(user, epsilon=0.0103, mass=40).thermo(every=1, rows=1)
    step, temperature, kinetic, potential, total = row
    assert row == (step, temperature, kinetic, potential, total) == Thermo(*row) and isinstance(row, Thermo)
    for copy in (pickle.loads(pickle.dumps(row)), row._replace(step=3)):
        assert type(copy) is ThermoInKelvin and copy[1:] == row[1:]


def test_a_user_of_a_program(user: Any) -> None:
    assert repr(user) == "User(run, sessions_seen=[])"
    dimer(user, "b")
    dimer(user, "a")
    assert repr(user) == "User(run, sessions_seen=['a', 'b'])"
    user.close()
    assert repr(user) == "User(run, closed)"


def test_a_user_of_a_server_has_no_token_in_it() -> None:
    with Server() as server, connect("127.0.0.1", server.port, "ann", TOKEN) as user:
        dimer(user)
        assert repr(user) == str(user) == "User('ann', sessions_seen=['a'])"
