"""All applications, by name."""
from __future__ import annotations

from yotarimu.applications import astar, bfs, color, des, labyrinth, maxflow, mis, msf, silo, sssp

APPLICATIONS = {it.name: it for it in (
    bfs.APPLICATION, sssp.APPLICATION, astar.APPLICATION, msf.APPLICATION, des.APPLICATION, silo.FLAT, silo.NESTED,
    silo.COARSE, color.FINE, color.COARSE, mis.NESTED, mis.FLAT, mis.COARSE, maxflow.NESTED, maxflow.FLAT,
    maxflow.COARSE, labyrinth.NESTED, labyrinth.FLAT, labyrinth.COARSE)}
# The programs of one problem in three forms: one task for each whole step, tasks of one order, and subdomains.
FORMS = {"silo": ("silo-coarse", "silo", "silo-nested"), "mis": ("mis-coarse", "mis-flat", "mis"),
         "maxflow": ("maxflow-coarse", "maxflow-flat", "maxflow"),
         "labyrinth": ("labyrinth-coarse", "labyrinth-flat", "labyrinth")}
