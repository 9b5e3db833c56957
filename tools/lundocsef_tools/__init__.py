"""Tools beside the program Lundocsef: pictures of plans, explanations, and help with inputs.

Nothing here is proved. What a tool says about a plan is compared with the program's own `report`.
"""
