# An event line of each line of a log, and behind every 25th a watermark two minutes below it:
#     jq -cR -f to-events.jq front1.log > front1.jsonl
# A line of another form gives no event: jq tells it on standard error, with its number.
([capture("^(?<host>[^ ]+) [^[]*\\[(?<time>[^ ]+) (?<sign>[+-])(?<hours>[0-9]{2})(?<minutes>[0-9]{2})\\]")][0]
    // error("left out: " + .))
| ((.hours | tonumber) * 60 + (.minutes | tonumber)) as $ahead
| (((.time | strptime("%d/%b/%Y:%H:%M:%S") | mktime) - (if .sign == "-" then -60 else 60 end) * $ahead)
    * 1000000) as $ts
| {key: .host, ts: $ts}, (select(input_line_number % 25 == 0) | {watermark: ($ts - 120000000)})
