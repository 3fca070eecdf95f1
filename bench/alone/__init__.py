"""Slots of a node, each by itself, from docs/PROFILE.md, docs/MODEL.md and docs/SCRIPT.md alone, and events by
chance."""
