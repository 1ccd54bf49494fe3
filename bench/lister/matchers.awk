# Maude's words on matchers.maude to lines: arguments, matchers, milliseconds.
# One rewrite for each matcher and two for each time, half the arguments and one for the list, one at the end.
/^reduce/ { gsub(/[^0-9]+/, " "); times = $1; arguments = $2 }
/^rewrites:/ { print arguments, ($2 - arguments / 2 - 2) / times - 2, $4 / times }
