"""Inputs for the comparison, made from a seed."""
