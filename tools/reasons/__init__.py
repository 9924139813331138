"""Why a metric shows what it shows: what a second reading of the rules (tools/compared) sees of a session, told to
people."""
