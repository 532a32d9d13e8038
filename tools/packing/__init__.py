"""What ./release does, a noun a module: the tree, the gate's record, the wheel, licences, and what goes where."""
