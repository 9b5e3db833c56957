"""A plan as a drawing. Each lane of it is made by a module of its own; `picture` puts them together."""
