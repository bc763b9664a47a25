#!/usr/bin/env python3
"""Writes two_clients.json: a service that two clients call at once. `./virraupez write examples/two_clients.py` runs it."""
import virraupez

shop = virraupez.Document()
shop.node("store").service("stock", depth=4, script="""
    g0 = g0 + in        # what was ordered so far
    reply g0
""")
for name, amount in (("left", 1), ("right", 10)):
    arm = shop.node(name)
    arm.timer(f"{name}_orders", period=10, script=f"call {name}_arm {amount}")
    arm.client(f"{name}_arm", service="stock", script="log in")
shop.moments(10, 11, 12, 13, 14, 20, 21, 22)
shop.write()
