from cvss_proved import CvssError, Vector

vector = Vector("CVSS:3.1/A:H/I:H/C:H/S:U/UI:N/PR:N/AC:L/AV:N")
print(vector, vector.score, vector.severity)
try:
    Vector("CVSS:3.1/AV:Q")
except CvssError as error:
    print(error)
