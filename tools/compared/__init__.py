"""A second reading of the rules: of configurations, sessions, metrics of every kind and reports; and what is drawn at
random to try it on."""
