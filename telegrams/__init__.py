"""Frames and messages of meters, made by the rules of the standards: for the demo of the service and of the fleet, and for tests."""
