SET SCALE 2 ROUNDING HALF_UP;
INPUT "T" ("id" INTEGER, "g" TEXT, "p" PERIOD) KEY ("id");
CREATE TABLE "U" AS
  SELECT "s"."g" AS "g", "u"."p" AS "p", "s"."p" AS "next"
  FROM SERIES "T" ON "p" BY ("g") SINGLE AS "s"
  INNER JOIN SERIES "T" ON "p" BY ("g") SINGLE AS "u" ON "s"."g" = "u"."g" AND "s"."p" = PERIOD_SHIFT("u"."p", 1);
EXPORT "U";
