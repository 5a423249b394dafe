"""The page over the fleet's database: the service's, with areas, gateways and a search."""
from __future__ import annotations
