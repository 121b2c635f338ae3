SET SCALE 2 ROUNDING HALF_UP;
INPUT "T" ("id" INTEGER, "g" TEXT, "p" PERIOD) KEY ("id");
CREATE TABLE "U" AS
  SELECT "u"."p" AS "p", COUNT("s"."p") AS "n"
  FROM SERIES "T" ON "p" ALL AS "u"
  LEFT JOIN SERIES "T" ON "p" BY ("g") SINGLE AS "s" ON "u"."p" = "s"."p"
  GROUP BY "u"."p";
EXPORT "U";
