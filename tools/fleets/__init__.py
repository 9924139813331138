"""Configurations over many recorded sessions: what tools/fleet is made of."""
