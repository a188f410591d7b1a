#!/usr/bin/env python3
"""Warehouses: which ones open, and which one serves each shop. `solve` prints the best plan, `write` the file warehouse.wcsp."""

from functools import partial

from model import Model, Plan, main

WAREHOUSES = {  # what opening it costs, in thousands of euros, and how many trucks a week it can send
    "Arnhem": (14.0, 9),
    "Breda": (9.5, 6),
    "Delft": (11.0, 7),
    "Zwolle": (8.5, 5),
}
SHOPS = {  # trucks a week, and what serving it costs from each warehouse, in thousands of euros
    "Assen": (2, (4.5, 8.0, 7.5, 2.5)),
    "Ede": (3, (1.5, 4.0, 4.5, 3.5)),
    "Gouda": (2, (4.0, 2.5, 1.0, 5.5)),
    "Hengelo": (1, (3.0, 7.5, 7.0, 2.0)),
    "Leiden": (3, (5.0, 3.5, 1.0, 6.0)),
    "Tilburg": (2, (4.5, 1.0, 3.5, 6.5)),
    "Venlo": (2, (3.5, 3.0, 5.5, 6.0)),
}


def needs(warehouse: str, state: str, chosen: str) -> bool:
    return chosen == warehouse and state == "closed"


def trucks(warehouse: str, shop: str, chosen: str) -> int:
    return SHOPS[shop][0] if chosen == warehouse else 0


def warehouse_choice() -> Model:
    model = Model("warehouse")
    for warehouse, (opening, _) in WAREHOUSES.items():
        model.variable(warehouse, ["closed", "open"])
        model.cost(warehouse, {"open": opening})
    for shop, (_, costs) in SHOPS.items():
        model.variable(shop, WAREHOUSES)
        model.cost(shop, dict(zip(WAREHOUSES, costs)))
        for warehouse in WAREHOUSES:
            model.forbid([warehouse, shop], partial(needs, warehouse))
    for warehouse, (_, capacity) in WAREHOUSES.items():
        model.total(f"trucks of {warehouse}", list(SHOPS), partial(trucks, warehouse), capacity)
    return model


def price(plan: Plan) -> float:
    """What a plan costs by the tables above. ValueError where it breaks a rule."""
    cost = 0.0
    for place, (warehouse, (opening, capacity)) in enumerate(WAREHOUSES.items()):
        served = [shop for shop in SHOPS if plan[shop] == warehouse]
        if sum(SHOPS[shop][0] for shop in served) > (capacity if plan[warehouse] == "open" else 0):
            raise ValueError(f"{warehouse} serves more than it can")
        cost += opening if plan[warehouse] == "open" else 0
        cost += sum(SHOPS[shop][1][place] for shop in served)
    return cost


if __name__ == "__main__":
    main(warehouse_choice(), price)
