"""Certificates that two nets are different: texts that anybody can check by counting, with no trust in keys.

certificates     what is looked for: a coordination sequence, or a list of arcs, that the other net has not
check_different  a checker by the standard library alone, which shares no code with the rest; a script, too
command          net_tool different

That such a sequence, or such a list, refutes each bijection that joins images if and only if the vertices are joined is
proved: `other_shells_refute` of the crate `coordination`, and `other_lists_refute` of `key_theory`."""
