# The queues that a journal of `gate` tells, as an object: {TENANT: {PIPELINE: [ITEM, ..]}}. It follows the rules of docs/FORMATS.md ("The
# lines tell the queue"), line by line, so it takes a journal up to any line. A pipeline that never had an item has no entry.
# usage: jq -n -f queue.jq JOURNAL
reduce inputs as $line ({};
  if $line.start then {}
  elif $line | .result // .cancel // .begin // .report | not then .
  else .[$line.tenant][$line.pipeline] |= ((. // []) as $queue
    | if $line.result then
        $queue | map(if .set == $line.result then .jobs[$line.job] = $line.success else . end)
      elif $line.report or ($line.why | IN("newer", "removed")) then
        $queue | map(select(.set != ($line.report // $line.cancel)))
      elif $line.cancel then
        $queue
      else
        ($line | {change, ref} | map_values(values)) as $key
        | ($line | {patchset, set: .begin, jobs: (.jobs | map({(.): "waiting"}) | add)} + $key) as $item
        | ($queue | map({change, ref} | map_values(values)) | index([$key])) as $place
        | if $place == null then $queue + [$item] else $queue | .[$place] = $item end
      end)
  end)
