"""The texts of the language's tests. What is to be told of each is found by language_checker.py and
language_evaluator.py."""
from language_expressions import EXPRESSIONS, SCOPES
from language_modules import FRAMES, MODULES
from language_programs import PROGRAMS

__all__ = ["EXPRESSIONS", "FRAMES", "MODULES", "PROGRAMS", "SCOPES"]
