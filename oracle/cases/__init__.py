"""Seeded cases: trees of every kind and detail, and damaged copies of them."""
