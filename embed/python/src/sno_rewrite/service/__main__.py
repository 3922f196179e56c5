"""`python3 -m sno_rewrite.service` is `nomyake-service`."""

import sys

from ._main import main

sys.exit(main())
