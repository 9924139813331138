"""Sessions from what people have: tables, events that Android's statsd gave out, and traces of Perfetto."""
