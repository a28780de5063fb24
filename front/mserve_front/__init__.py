# SPDX-License-Identifier: Apache-2.0
"""The front end of mserve: it signs people on, gives each a terminal of their account, and carries the lines of all of them."""
