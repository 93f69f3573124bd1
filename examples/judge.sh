# Judges a text: answer, position and number of good bytes. `Zh==` has spare bits that are not zero.
printf 'J 0 00\nZh==' | ./zem
