#!/usr/bin/env python3
from lcrq_tools.entry import script
script("live")
