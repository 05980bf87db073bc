"""A page for the reader who has to explain a verdict: one HTML file, without script or network, that prints on A4."""
from .build import Page, make_page

__all__ = ["Page", "make_page"]
