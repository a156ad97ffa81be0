; What two instructions of x86-64 do that the toolchain's vectors are made of (PMADDUBSW and PMADDWD), for any machine:
; numbers are multiplied lane by lane, and the products of neighbours added.

; Bytes without a sign by bytes with one; a sum past 16 bits is the nearest that they hold.
define internal <8 x i16> @pairs_of_bytes(<16 x i8> %a, <16 x i8> %b) {
  %a.first = shufflevector <16 x i8> %a, <16 x i8> poison, <8 x i32> <i32 0, i32 2, i32 4, i32 6, i32 8, i32 10, i32 12, i32 14>
  %a.second = shufflevector <16 x i8> %a, <16 x i8> poison, <8 x i32> <i32 1, i32 3, i32 5, i32 7, i32 9, i32 11, i32 13, i32 15>
  %b.first = shufflevector <16 x i8> %b, <16 x i8> poison, <8 x i32> <i32 0, i32 2, i32 4, i32 6, i32 8, i32 10, i32 12, i32 14>
  %b.second = shufflevector <16 x i8> %b, <16 x i8> poison, <8 x i32> <i32 1, i32 3, i32 5, i32 7, i32 9, i32 11, i32 13, i32 15>
  %a.one = zext <8 x i8> %a.first to <8 x i32>
  %a.two = zext <8 x i8> %a.second to <8 x i32>
  %b.one = sext <8 x i8> %b.first to <8 x i32>
  %b.two = sext <8 x i8> %b.second to <8 x i32>
  %one = mul <8 x i32> %a.one, %b.one
  %two = mul <8 x i32> %a.two, %b.two
  %sum = add <8 x i32> %one, %two
  %is.low = icmp slt <8 x i32> %sum, splat (i32 -32768)
  %above = select <8 x i1> %is.low, <8 x i32> splat (i32 -32768), <8 x i32> %sum
  %is.high = icmp sgt <8 x i32> %above, splat (i32 32767)
  %within = select <8 x i1> %is.high, <8 x i32> splat (i32 32767), <8 x i32> %above
  %all = trunc <8 x i32> %within to <8 x i16>
  ret <8 x i16> %all
}

; Numbers of 16 bits with a sign.
define internal <4 x i32> @pairs_of_words(<8 x i16> %a, <8 x i16> %b) {
  %a.first = shufflevector <8 x i16> %a, <8 x i16> poison, <4 x i32> <i32 0, i32 2, i32 4, i32 6>
  %a.second = shufflevector <8 x i16> %a, <8 x i16> poison, <4 x i32> <i32 1, i32 3, i32 5, i32 7>
  %b.first = shufflevector <8 x i16> %b, <8 x i16> poison, <4 x i32> <i32 0, i32 2, i32 4, i32 6>
  %b.second = shufflevector <8 x i16> %b, <8 x i16> poison, <4 x i32> <i32 1, i32 3, i32 5, i32 7>
  %a.one = sext <4 x i16> %a.first to <4 x i32>
  %a.two = sext <4 x i16> %a.second to <4 x i32>
  %b.one = sext <4 x i16> %b.first to <4 x i32>
  %b.two = sext <4 x i16> %b.second to <4 x i32>
  %one = mul <4 x i32> %a.one, %b.one
  %two = mul <4 x i32> %a.two, %b.two
  %sum = add <4 x i32> %one, %two
  ret <4 x i32> %sum
}
