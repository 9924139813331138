"""Frames as bytes, for tools that make long sessions, and the least time and memory of their replays."""
