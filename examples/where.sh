# What `where`, whose path is the argument, prints for a few texts: examples/where.txt.
where=$1
printf 'A+ImIDkQ.' | "$where" utf7 2
printf 'A+ImIDkQ.' | "$where" utf7
printf 'a+-+AKM-1' | "$where" utf7
printf 'a&-&ZeVnLIqe-' | "$where" mailbox
printf '\033$B$"\033.A\033NA\033(Bb\r\n' | "$where" jp2
printf 'a+AKN-b' | "$where" utf7
