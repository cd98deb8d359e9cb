"""Which atoms become one vertex.

building_units  metal parts, linkers, rings and anions
formulas        what vertices stand for
conventions     what is a vertex by the conventions of the field"""
