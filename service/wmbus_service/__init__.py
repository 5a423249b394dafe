"""The collector as a service on one machine: receivers' lines are spooled, sessions of the proved program take them, and all that a
session says is committed in one transaction together with the places up to which the lines are taken. What leaves the machine leaves
from committed rows."""
