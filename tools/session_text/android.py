"""What Android's configurations have beside the fields of this profile, by their names there: what becomes of them,
and a schema with them, by which text that names them is made bytes. The names and numbers are from memory: no copy
of Android's file was at hand. docs/CONFIGURATION.md has them as tables."""
import pathlib
import re
import tempfile
from collections import namedtuple

from . import protobuf
from .faults import Fault
from .protobuf import PROTO
from .schema import TOP, message_of, messages

PASSED, NO_EFFECT, REFUSED = "passed over", "without effect", "refused"

# A field, or a number of an enumeration: how it is declared, what becomes of it, and what that means.
Extra = namedtuple("Extra", "number name declared fate means")


def extra(number, declared, fate, means=""):
    """A field of a message."""
    return Extra(number, declared.split()[-1], declared, fate, means)


REFUSED_TEST = "a test of another kind, which is a metric's own meaning"
SAMPLED = "a sample of the dimensions would show other numbers"
THRESHOLD = "rows below it would be left out"
IN_CONDITION = "Android has given it up, too"
NO_DELAY = "a pull stands in the session where it came"
NO_MAP = "reports have no map of uids"
ANY_SOURCE = "atoms count whoever logged them"
ANY_PULLER = "a pull stands in the session, whoever gave it"
WHOLE_BUCKETS = "no upgrade of an app cuts a bucket; a report with a cut does"
SHORT_BUCKETS = "a part of a bucket is shown however short it is"

EXTRAS = {
    "StatsdConfig": [
        extra(9, "repeated AndroidAlert alert", PASSED, "no alert comes"),
        extra(10, "repeated AndroidAlarm alarm", PASSED, "no alarm comes"),
        extra(11, "repeated AndroidSubscription subscription", PASSED, "nobody is told of alerts and alarms"),
        extra(12, "repeated string allowed_log_source", PASSED, ANY_SOURCE),
        extra(14, "repeated AndroidAnnotation annotation", PASSED, "reports have no annotations"),
        extra(15, "optional int64 ttl_in_seconds", PASSED, "it stays until it is replaced or removed"),
        extra(16, "optional bool hash_strings_in_metric_report", PASSED, "strings stand in reports as they came"),
        extra(17, "repeated AndroidMetricActivation metric_activation", REFUSED, "it changes when all metrics count"),
        extra(18, "optional bool version_strings_in_metric_report", PASSED, NO_MAP),
        extra(19, "optional bool installer_in_metric_report", PASSED, NO_MAP),
        extra(20, "optional bool persist_locally", PASSED, "nothing is kept past the session"),
        extra(22, "repeated string default_pull_packages", PASSED, ANY_PULLER),
        extra(23, "repeated AndroidPullAtomPackages pull_atom_packages", PASSED, ANY_PULLER),
        extra(24, "repeated int32 whitelisted_atom_ids", PASSED, ANY_SOURCE),
        extra(25, "repeated AndroidKllMetric kll_metric", PASSED, "the metric isn't there: no report has it"),
        extra(26, "optional uint32 package_certificate_hash_size_bytes", PASSED, NO_MAP),
        extra(
            27,
            "optional string restricted_metrics_delegate_package_name",
            PASSED,
            "reports go to the client, as others",
        ),
        extra(28, "optional int32 max_metrics_memory_kb", PASSED, "memory has no limit but the bounds of tables"),
        extra(29, "optional int32 soft_metrics_memory_kb", PASSED, "memory has no limit but the bounds of tables"),
    ],
    "FieldValueMatcher": [
        extra(8, "float lt_float", REFUSED, "floats aren't read as numbers"),
        extra(9, "float gt_float", REFUSED, "floats aren't read as numbers"),
        extra(15, "AndroidIntListMatcher eq_any_int", REFUSED, "an OR of matchers with eq_int says the same"),
        extra(
            16, "AndroidIntListMatcher neq_any_int", REFUSED, "a NOT of matchers with eq_int holds for other ids, too"
        ),
        extra(17, "bytes eq_wildcard_string", REFUSED, "there are no wildcards"),
        extra(18, "StringListMatcher eq_any_wildcard_string", REFUSED, "there are no wildcards"),
        extra(19, "StringListMatcher neq_any_wildcard_string", REFUSED, "there are no wildcards"),
        extra(20, "optional AndroidStringReplacer replace_string", REFUSED, "strings stand as they came"),
    ],
    "CountMetric": [
        extra(7, "optional FieldMatcher dimensions_in_condition", REFUSED, IN_CONDITION),
        extra(10, "optional AndroidUploadThreshold threshold", REFUSED, THRESHOLD),
        extra(11, "optional AndroidDimensionalSamplingInfo dimensional_sampling_info", REFUSED, SAMPLED),
    ],
    "ValueMetric": [
        extra(9, "optional FieldMatcher dimensions_in_condition", REFUSED, IN_CONDITION),
        extra(10, "optional int64 min_bucket_size_nanos", NO_EFFECT, SHORT_BUCKETS),
        extra(16, "optional int32 max_pull_delay_sec", NO_EFFECT, NO_DELAY),
        extra(17, "optional bool split_bucket_for_app_upgrade", NO_EFFECT, WHOLE_BUCKETS),
        extra(20, "optional AndroidUploadThreshold threshold", REFUSED, THRESHOLD),
        extra(23, "optional AndroidDimensionalSamplingInfo dimensional_sampling_info", REFUSED, SAMPLED),
    ],
    "GaugeMetric": [
        extra(8, "optional FieldMatcher dimensions_in_condition", REFUSED, IN_CONDITION),
        extra(10, "optional int64 min_bucket_size_nanos", NO_EFFECT, SHORT_BUCKETS),
        extra(13, "optional int32 max_pull_delay_sec", NO_EFFECT, NO_DELAY),
        extra(14, "optional bool split_bucket_for_app_upgrade", NO_EFFECT, WHOLE_BUCKETS),
        extra(15, "optional AndroidDimensionalSamplingInfo dimensional_sampling_info", REFUSED, SAMPLED),
    ],
    "DurationMetric": [
        extra(8, "optional FieldMatcher dimensions_in_condition", REFUSED, IN_CONDITION),
        extra(11, "optional AndroidUploadThreshold threshold", REFUSED, THRESHOLD),
        extra(12, "optional AndroidDimensionalSamplingInfo dimensional_sampling_info", REFUSED, SAMPLED),
    ],
}

# Numbers of enumerations that Android has, and this profile refuses.
LABELS = {
    "TimeUnit": {"TIME_UNIT_UNSPECIFIED": 0, "ONE_WEEK": 10},
    "ValueMetric.AggregationType": {"AVG": 4},
    "GaugeMetric.SamplingType": {"ALL_CONDITION_CHANGES": 2},
}

# What the fields above hold. What is passed over is looked into by nobody.
MESSAGES = """
message AndroidAlert {
  optional int64 id = 1;
  optional int64 metric_id = 2;
  optional int32 num_buckets = 3;
  optional int32 refractory_period_secs = 4;
  optional double trigger_if_sum_gt = 5;
}
message AndroidAlarm {
  optional int64 id = 1;
  optional int64 offset_millis = 2;
  optional int64 period_millis = 3;
  optional float probability_of_informing = 4;
}
message AndroidSubscription {
  enum RuleType { RULE_TYPE_UNSPECIFIED = 0; ALARM = 1; ALERT = 2; }
  message IncidentdDetails { repeated int32 section = 1; }
  message PerfettoDetails { optional bytes trace_config = 1; }
  message BroadcastSubscriberDetails { optional int64 subscriber_id = 1; repeated string cookie = 2; }
  optional int64 id = 1;
  optional RuleType rule_type = 2;
  optional int64 rule_id = 3;
  optional IncidentdDetails incidentd_details = 4;
  optional PerfettoDetails perfetto_details = 5;
  optional BroadcastSubscriberDetails broadcast_subscriber_details = 6;
  optional float probability_of_informing = 7;
}
message AndroidAnnotation { optional int64 field_int64 = 1; optional int32 field_int32 = 2; }
message AndroidMetricActivation {
  enum ActivationType { ACTIVATION_TYPE_UNKNOWN = 0; ACTIVATE_IMMEDIATELY = 1; ACTIVATE_ON_BOOT = 2; }
  message EventActivation {
    optional int64 atom_matcher_id = 1;
    optional int64 ttl_seconds = 2;
    optional int64 deactivation_atom_matcher_id = 3;
    optional ActivationType activation_type = 4;
  }
  optional int64 metric_id = 1;
  repeated EventActivation event_activation = 2;
  optional ActivationType activation_type = 3;
}
message AndroidPullAtomPackages { optional int32 atom_id = 1; repeated string packages = 2; }
message AndroidKllMetric {
  optional int64 id = 1;
  optional int64 what = 2;
  optional FieldMatcher kll_field = 3;
  optional int64 condition = 4;
  optional FieldMatcher dimensions_in_what = 5;
  optional TimeUnit bucket = 6;
  repeated MetricConditionLink links = 7;
  optional int64 min_bucket_size_nanos = 8;
  optional bool split_bucket_for_app_upgrade = 9;
  repeated int64 slice_by_state = 10;
  repeated MetricStateLink state_link = 11;
}
message AndroidIntListMatcher { repeated int64 int_value = 1; }
message AndroidStringReplacer { optional string regex = 1; optional string replacement = 2; }
message AndroidUploadThreshold {
  optional int64 lt_int = 1;
  optional int64 gt_int = 2;
  optional float lt_float = 3;
  optional float gt_float = 4;
  optional int64 lte_int = 5;
  optional int64 gte_int = 6;
}
message AndroidDimensionalSamplingInfo { optional FieldMatcher sampled_what_field = 1; optional int32 shard_count = 2; }
"""


def named(message, number):
    """The field of a message that Android has beside the profile, or None."""
    return next((one for one in EXTRAS.get(message, []) if one.number == number), None)


def refused_words(path):
    """What Android calls the field at the end of a path that isn't supported, and what it would mean; nothing where
    it is known to nobody."""
    message = TOP
    for number in path[:-1]:
        field = messages().get(message, {}).get(number)
        message = message_of(message, field.type) if field else None
    known = named(message, path[-1])
    return f" (Android's {known.name}: {known.means})" if known else ""


def with_extras(profile, message):
    """The profile with Android's further fields in a message. A field of the profile's own that has one of their
    names is called own_NAME; the members of a oneof stand in it."""
    begin = re.search(rf"^message {message} \{{$", profile, re.MULTILINE).end()
    end = profile.index("\n}\n", begin)
    body = profile[begin:end]
    for one in EXTRAS[message]:
        body = re.sub(rf"(?m)^( +\w+ [\w.]+ ){one.name}( = \d+)", r"\1own_" + one.name + r"\2", body)
    fields = [f"  {one.declared} = {one.number};" for one in EXTRAS[message] if one.declared.count(" ") == 2]
    members = [f"    {one.declared} = {one.number};" for one in EXTRAS[message] if one.declared.count(" ") == 1]
    if members:
        body = re.sub(r"(?m)^  oneof \w+ \{$", lambda found: "\n".join([found[0], *members]), body, count=1)
    return profile[:begin] + body + "".join("\n" + field for field in fields) + profile[end:]


def with_labels(profile, enum):
    """The profile with Android's further numbers of an enumeration, after those that it has."""
    *outer, name = enum.split(".")
    begin = profile.index(f"message {outer[0]} {{") if outer else 0
    begin = profile.index(f"enum {name} {{", begin)
    end = profile.index("}", begin)
    return profile[:end] + "".join(f" {label} = {number};" for label, number in LABELS[enum].items()) + profile[end:]


def schema():
    """A schema of the profile with Android's further fields."""
    profile = (PROTO / "statsd_config.proto").read_text(encoding="utf-8")
    profile = re.sub(r"(?m)^ *reserved [\d, ]+;.*$", "", profile)
    for message in EXTRAS:
        profile = with_extras(profile, message)
    for enum in LABELS:
        profile = with_labels(profile, enum)
    return profile + MESSAGES


# Where protoc met a fault of text.
PLACE = re.compile(r":(\d+):(\d+):")


def place_of(fault):
    """The line and the column of a fault of text."""
    found = PLACE.search(str(fault))
    return (int(found[1]), int(found[2])) if found else (0, 0)


def encoded(text, name):
    """The bytes of a configuration in protobuf text, which may name what Android has beside the profile. Of a fault
    by both schemas the one is told that stands later: there the other has gone on."""
    try:
        return protobuf.encoded(text, name)
    except Fault as fault:
        first = fault
    with tempfile.TemporaryDirectory() as folder:
        (pathlib.Path(folder) / "statsd_config.proto").write_text(schema(), encoding="utf-8")
        try:
            return protobuf.encoded(text, name, folder)
        except Fault as second:
            raise (second if place_of(second) > place_of(first) else first) from None
