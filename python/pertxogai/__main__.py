"""`python3 -m pertxogai`, which ./pertxogai calls."""
import sys

from pertxogai.commands import main

sys.exit(main())
