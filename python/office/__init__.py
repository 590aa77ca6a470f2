"""The office's desk: a front for people over the proved desk. Every number that it shows is the proved library's."""
